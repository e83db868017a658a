`draw --machines` and `draw --outline`: the places of atoms, and connectors alone.

== machine_with_loops
All loops of a place share the arrow of the first one, which has their labels one below the other. A transition between two places has an arrow of its own, and
one with several places its box.
$ draw plant --machines
digraph plant {
  fontname="Helvetica";
  labelloc=b;
  nodesep=0.4;
  ranksep=0.6;
  node [fontname="Helvetica"];
  edge [fontname="Helvetica", fontsize=11];
  subgraph cluster_0 {
    label="Lamp\nn = 0";
    place_0_0 [shape=circle, margin=0.03, style=filled, label="off"];
    place_0_1 [shape=circle, margin=0.03, label="on"];
    place_0_0 -> place_0_0 [label="tick/0\ntick/3\nwhen < 0 n\nn := 0\ntick/7\nn := 1"];
    place_0_0 -> place_0_1 [label="push/1"];
    place_0_1 -> place_0_1 [label="tick/2\nwhen < n 9\nn := + n 1\npush/5\nn := 5"];
    place_0_1 -> place_0_0 [label="push/4"];
    transition_0_6 [shape=box, label="tick/6"];
    place_0_0 -> transition_0_6;
    place_0_1 -> transition_0_6;
    transition_0_6 -> place_0_0;
    transition_0_6 -> place_0_1;
  }
}
-- plant
atom Lamp
place off init
place on
var n 0
port push
port tick n
trans tick from off to off
trans push from off to on
trans tick from on to on when < n 9 do n := + n 1
trans tick from off to off when < 0 n do n := 0
trans push from on to off
trans push from on to on do n := 5
trans tick from off on to off on
trans tick from off to off do n := 1
connector press Lamp.push
connector clock Lamp.tick

== machine_without_places
Of an atom that has ports alone nothing but its name is left.
$ draw plant --machines
digraph plant {
  fontname="Helvetica";
  labelloc=b;
  nodesep=0.4;
  ranksep=0.6;
  node [fontname="Helvetica"];
  edge [fontname="Helvetica", fontsize=11];
  subgraph cluster_0 {
    label="A";
  }
}
-- plant
atom A
port p

== machines
Atoms as machines: an arrow between two places has the label of its transition's box, and a box is left where places come together or part.
$ draw plant --machines
digraph plant {
  fontname="Helvetica";
  labelloc=b;
  nodesep=0.4;
  ranksep=0.6;
  node [fontname="Helvetica"];
  edge [fontname="Helvetica", fontsize=11];
  subgraph cluster_0 {
    label="Gate\nn = 3\nm = -1";
    place_0_0 [shape=circle, margin=0.03, style=filled, label="shut"];
    place_0_1 [shape=circle, margin=0.03, label="open"];
    place_0_2 [shape=circle, margin=0.03, label="spare"];
    place_0_0 -> place_0_1 [label="go/0\nwhen && < n 3 ! m\nn := + n 1\nm := max n -1"];
    place_0_1 -> place_0_0 [label="back/1"];
    transition_0_2 [shape=box, label="go/2"];
    place_0_0 -> transition_0_2;
    place_0_1 -> transition_0_2;
    transition_0_2 -> place_0_2;
    transition_0_3 [shape=box, label="back/3"];
    place_0_2 -> transition_0_3;
    transition_0_3 -> place_0_0;
    transition_0_3 -> place_0_1;
    place_0_1 -> place_0_1 [label="go/4\nm := 0"];
  }
  subgraph cluster_1 {
    label="Horn";
    place_1_0 [shape=circle, margin=0.03, style=filled, label="on"];
    place_1_0 -> place_1_0 [label="u/0"];
  }
}
-- plant
# Ports, connectors and rules are not drawn.
atom Gate
place shut init
place open
place spare
var n 3
var m -1
port go n
port back
trans go from shut to open when && < n 3 ! m do n := + n 1 ; m := max n -1
trans back from open to shut when 1
trans go from shut open to spare
trans back from spare to shut open
trans go from open to open do m := 0
atom Horn
place on init
port u
trans u from on to on
connector both Gate.go' Horn.u
connector one Gate.back
prio one < both

== machines_after_a_pick
The places are filled that the pick leads to, and the variables have their values then.
$ draw plant --machines --after 0
digraph plant {
  fontname="Helvetica";
  labelloc=b;
  nodesep=0.4;
  ranksep=0.6;
  node [fontname="Helvetica"];
  edge [fontname="Helvetica", fontsize=11];
  subgraph cluster_0 {
    label="A\nn = 3";
    place_0_0 [shape=circle, margin=0.03, label="up"];
    place_0_1 [shape=circle, margin=0.03, style=filled, label="down"];
    place_0_0 -> place_0_1 [label="press/0\nn := - n 1"];
  }
  subgraph cluster_1 {
    label="B";
    place_1_0 [shape=circle, margin=0.03, style=filled, label="s"];
    place_1_0 -> place_1_0 [label="p/0"];
  }
}
-- plant
atom A
place up init
place down
var n 4
port press
trans press from up to down do n := - n 1
atom B
place s init
port p
trans p from s to s
connector push A.press B.p

== machines_after_a_refused_pick
Nothing is drawn where a pick is refused.
$ draw plant --machines --strict --after 0 0
! error: pick 2 of the command line: pick 0, but there is no choice
? 1
-- plant
atom A
place p init
place q
port t
trans t from p to q
connector c A.t

== machines_of_some_atoms
Two of three atoms are drawn as machines, after the picks of a file, in written order.
$ draw plant --machines --only C,B --picks p.txt
digraph plant {
  fontname="Helvetica";
  labelloc=b;
  nodesep=0.4;
  ranksep=0.6;
  node [fontname="Helvetica"];
  edge [fontname="Helvetica", fontsize=11];
  subgraph cluster_1 {
    label="B";
    place_1_0 [shape=circle, margin=0.03, label="p"];
    place_1_1 [shape=circle, margin=0.03, style=filled, label="q"];
    place_1_0 -> place_1_1 [label="t/0"];
  }
  subgraph cluster_2 {
    label="C";
    place_2_0 [shape=circle, margin=0.03, style=filled, label="p"];
    place_2_1 [shape=circle, margin=0.03, label="q"];
    place_2_0 -> place_2_1 [label="t/0"];
  }
}
-- p.txt
turn A.t/0 B.t/0
-- plant
atom A
place p init
place q
port t
trans t from p to q
atom B
place p init
place q
port t
trans t from p to q
atom C
place p init
place q
port t
trans t from p to q
connector turn A.t B.t
connector own C.t

== outline
An outline has a node for each atom and each connector, an edge without words for each rule, and lays straight lines.
$ draw plant --outline
digraph plant {
  fontname="Helvetica";
  labelloc=b;
  nodesep=0.4;
  ranksep=0.6;
  node [fontname="Helvetica"];
  edge [fontname="Helvetica", fontsize=11];
  splines=line;
  mclimit=0.1;
  nslimit=1;
  nslimit1=1;
  atom_0 [shape=box, label="A"];
  atom_1 [shape=box, label="B"];
  atom_2 [shape=box, label="C"];
  connector_0 [shape=ellipse, style=filled, fillcolor=lightyellow, fontsize=10, margin=0.02, height=0.25, label="both"];
  connector_0 -> atom_0 [arrowhead=normal];
  connector_0 -> atom_1 [arrowhead=dot];
  connector_0 -> atom_2 [arrowhead=dot];
  connector_1 [shape=ellipse, style=filled, fillcolor=lightyellow, fontsize=10, margin=0.02, height=0.25, label="one"];
  connector_1 -> atom_2 [arrowhead=dot];
  connector_0 -> connector_1 [style=dashed, color=firebrick];
  connector_0 -> connector_0 [style=dashed, color=firebrick];
  connector_0 -> connector_0 [style=dashed, color=firebrick];
}
-- plant
atom A
place s init
port p
trans p from s to s
atom B
place s init
port p
trans p from s to s
atom C
place s init
port p
port q
trans p from s to s
trans q from s to s
connector both [ A.p' [ B.p ] ]' C.q
connector one C.p
prio both < one
prio both:1 < both:7
maximal both

== outline_of_a_rule_with_a_condition
An outline has the edge of a rule with a condition as that of any other rule.
$ draw plant --outline
digraph plant {
  fontname="Helvetica";
  labelloc=b;
  nodesep=0.4;
  ranksep=0.6;
  node [fontname="Helvetica"];
  edge [fontname="Helvetica", fontsize=11];
  splines=line;
  mclimit=0.1;
  nslimit=1;
  nslimit1=1;
  atom_0 [shape=box, label="A"];
  atom_1 [shape=box, label="S"];
  atom_2 [shape=box, label="L"];
  connector_0 [shape=ellipse, style=filled, fillcolor=lightyellow, fontsize=10, margin=0.02, height=0.25, label="turn"];
  connector_0 -> atom_0 [arrowhead=dot];
  connector_1 [shape=ellipse, style=filled, fillcolor=lightyellow, fontsize=10, margin=0.02, height=0.25, label="say"];
  connector_1 -> atom_1 [arrowhead=normal];
  connector_1 -> atom_2 [arrowhead=dot];
  connector_1 -> connector_1 [style=dashed, color=firebrick];
}
-- plant
atom A
place on init
place off
port t
trans t from on to off
trans t from off to on
atom S
place s init
port say
trans say from s to s
atom L
place s init
port hear
trans hear from s to s
connector turn A.t
connector say S.say' L.hear
prio say:1 < say:3 when A at on

== outline_of_some_atoms
Two of four atoms are outlined, with the connectors that have a leaf of one of them, the edges to them, and the rules between such connectors.
$ draw plant --outline --only C,A
digraph plant {
  fontname="Helvetica";
  labelloc=b;
  nodesep=0.4;
  ranksep=0.6;
  node [fontname="Helvetica"];
  edge [fontname="Helvetica", fontsize=11];
  splines=line;
  mclimit=0.1;
  nslimit=1;
  nslimit1=1;
  atom_0 [shape=box, label="A"];
  atom_2 [shape=box, label="C"];
  connector_1 [shape=ellipse, style=filled, fillcolor=lightyellow, fontsize=10, margin=0.02, height=0.25, label="across"];
  connector_1 -> atom_0 [arrowhead=normal];
  connector_1 -> atom_2 [arrowhead=dot];
  connector_3 [shape=ellipse, style=filled, fillcolor=lightyellow, fontsize=10, margin=0.02, height=0.25, label="own"];
  connector_3 -> atom_2 [arrowhead=dot];
  connector_1 -> connector_3 [style=dashed, color=firebrick];
  connector_1 -> connector_1 [style=dashed, color=firebrick];
}
-- plant
atom A
place s init
port p
trans p from s to s
atom B
place s init
port p
trans p from s to s
atom C
place s init
port p
trans p from s to s
atom D
place s init
port p
trans p from s to s
connector inner B.p
connector across [ A.p' [ B.p ] ]' C.p
connector last D.p
connector own C.p
prio inner < across
prio across < own
prio own < last
maximal last
maximal across
