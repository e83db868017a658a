`draw`: a plant as a graph for dot, in its first state or after picks.

== after_a_pick
The state after a pick is drawn: the place is marked that the pick leads to, and the connector is green that can be fired then.
$ draw plant --after 0
digraph plant {
  fontname="Helvetica";
  labelloc=b;
  nodesep=0.4;
  ranksep=0.6;
  node [fontname="Helvetica"];
  edge [fontname="Helvetica", fontsize=11];
  subgraph cluster_0 {
    label="A";
    place_0_0 [shape=circle, margin=0.03, label="up"];
    place_0_1 [shape=circle, margin=0.03, style=filled, label="down"];
    port_0_0 [shape=ellipse, label="press"];
    port_0_1 [shape=ellipse, label="release"];
    transition_0_0 [shape=box, label="press/0"];
    port_0_0 -> transition_0_0 [style=dotted, arrowhead=none];
    place_0_0 -> transition_0_0;
    transition_0_0 -> place_0_1;
    transition_0_1 [shape=box, label="release/1"];
    port_0_1 -> transition_0_1 [style=dotted, arrowhead=none];
    place_0_1 -> transition_0_1;
    transition_0_1 -> place_0_0;
  }
  connector_0 [shape=box, style="rounded,filled", fillcolor=lightyellow, label="push\n A.press "];
  connector_0 -> port_0_0 [arrowhead=dot];
  connector_1 [shape=box, style="rounded,filled", fillcolor=palegreen, label="pull\n A.release "];
  connector_1 -> port_0_1 [arrowhead=dot];
}
-- plant
atom A
place up init
place down
port press
port release
trans press from up to down
trans release from down to up
connector push A.press
connector pull A.release

== after_a_refused_pick
$ draw plant --strict --after 0 0
! error: pick 2 of the command line: pick 0, but there is no choice
? 1
-- plant
atom A
place p init
place q
port t
trans t from p to q
connector c A.t

== after_picks_of_a_file
The second place is marked, and nothing can be fired.
$ draw plant --picks p.txt
digraph plant {
  fontname="Helvetica";
  labelloc=b;
  nodesep=0.4;
  ranksep=0.6;
  node [fontname="Helvetica"];
  edge [fontname="Helvetica", fontsize=11];
  subgraph cluster_0 {
    label="A";
    place_0_0 [shape=circle, margin=0.03, label="p"];
    place_0_1 [shape=circle, margin=0.03, style=filled, label="q"];
    port_0_0 [shape=ellipse, label="t"];
    transition_0_0 [shape=box, label="t/0"];
    port_0_0 -> transition_0_0 [style=dotted, arrowhead=none];
    place_0_0 -> transition_0_0;
    transition_0_0 -> place_0_1;
  }
  connector_0 [shape=box, style="rounded,filled", fillcolor=lightyellow, label="c\n A.t "];
  connector_0 -> port_0_0 [arrowhead=dot];
}
-- p.txt
c A.t/0
-- plant
atom A
place p init
place q
port t
trans t from p to q
connector c A.t

== all_operators
Each operator, in a guard and in updates.
$ draw plant
~ label="t/0\nwhen || && < n 2 <= n 2 ! != n 2\nn := * min n 3 max n - 4 n\nn := == n -1"
-- plant
atom A
place p init
var n 1
port t
trans t from p to p when || && < n 2 <= n 2 ! != n 2 do n := * min n 3 max n - 4 n ; n := == n -1
connector c A.t

== atom_alone
An atom is a cluster of all its parts. Its text was written by hand after docs/COMMANDS.md.
$ draw plant
digraph plant {
  fontname="Helvetica";
  labelloc=b;
  nodesep=0.4;
  ranksep=0.6;
  node [fontname="Helvetica"];
  edge [fontname="Helvetica", fontsize=11];
  subgraph cluster_0 {
    label="A\nn = 0\nm = -9223372036854775808";
    place_0_0 [shape=circle, margin=0.03, style=filled, label="p"];
    place_0_1 [shape=circle, margin=0.03, label="q"];
    port_0_0 [shape=ellipse, label="back"];
    port_0_1 [shape=ellipse, label="go m n"];
    transition_0_0 [shape=box, label="go/0\nwhen < n 10\nm := ! n\nn := + n -1"];
    port_0_1 -> transition_0_0 [style=dotted, arrowhead=none];
    place_0_0 -> transition_0_0;
    transition_0_0 -> place_0_1;
    transition_0_1 [shape=box, label="back/1"];
    port_0_0 -> transition_0_1 [style=dotted, arrowhead=none];
    place_0_0 -> transition_0_1;
    place_0_1 -> transition_0_1;
    transition_0_1 -> place_0_1;
  }
}
-- plant
atom A
place p init
place q
var n 0
var m -9223372036854775808
port back
port go m n
trans go from p to q when < n 10 do m := ! n ; n := + n -1
trans back from p q to q

== atom_without_parts
$ draw -
< atom A
\ no line feed
digraph plant {
  fontname="Helvetica";
  labelloc=b;
  nodesep=0.4;
  ranksep=0.6;
  node [fontname="Helvetica"];
  edge [fontname="Helvetica", fontsize=11];
  subgraph cluster_0 {
    label="A";
  }
}

== every_kind_of_part
Each kind of thing that a drawing has; its text was written by hand after docs/COMMANDS.md.
$ draw plant
digraph plant {
  fontname="Helvetica";
  labelloc=b;
  nodesep=0.4;
  ranksep=0.6;
  node [fontname="Helvetica"];
  edge [fontname="Helvetica", fontsize=11];
  subgraph cluster_0 {
    label="A\nn = 7\nm = -9223372036854775808";
    place_0_0 [shape=circle, margin=0.03, style=filled, label="p"];
    place_0_1 [shape=circle, margin=0.03, label="q"];
    port_0_0 [shape=ellipse, label="go m n"];
    port_0_1 [shape=ellipse, label="back"];
    transition_0_0 [shape=box, label="go/0\nwhen && < n 3 ! m\nn := + n 1\nm := max n -1"];
    port_0_0 -> transition_0_0 [style=dotted, arrowhead=none];
    place_0_0 -> transition_0_0;
    transition_0_0 -> place_0_1;
    transition_0_1 [shape=box, label="back/1"];
    port_0_1 -> transition_0_1 [style=dotted, arrowhead=none];
    place_0_1 -> transition_0_1;
    transition_0_1 -> place_0_0;
    transition_0_2 [shape=box, label="go/2"];
    port_0_0 -> transition_0_2 [style=dotted, arrowhead=none];
    place_0_0 -> transition_0_2;
    place_0_1 -> transition_0_2;
    transition_0_2 -> place_0_1;
    transition_0_2 -> place_0_0;
  }
  subgraph cluster_1 {
    label="B_2\nk = 0";
    place_1_0 [shape=circle, margin=0.03, style=filled, label="s"];
    port_1_0 [shape=ellipse, label="u k"];
    transition_1_0 [shape=box, label="u/0"];
    port_1_0 -> transition_1_0 [style=dotted, arrowhead=none];
    place_1_0 -> transition_1_0;
    transition_1_0 -> place_1_0;
  }
  connector_0 [shape=box, style="rounded,filled", fillcolor=lightyellow, label="both\n A.go' [ B_2.u ]' \nguard <= A.n B_2.k\nguard 1\nB_2.k := + A.n A.m\nA.m := 0"];
  connector_0 -> port_0_0 [arrowhead=normal];
  connector_0 -> port_1_0 [arrowhead=dot];
  connector_1 [shape=box, style="rounded,filled", fillcolor=lightyellow, label="one\n A.back "];
  connector_1 -> port_0_1 [arrowhead=dot];
  connector_2 [shape=box, style="rounded,filled", fillcolor=lightyellow, label="other\n B_2.u "];
  connector_2 -> port_1_0 [arrowhead=dot];
  connector_1 -> connector_0 [style=dashed, color=firebrick, fontcolor=firebrick, label=" one < both "];
  connector_0 -> connector_0 [style=dashed, color=firebrick, fontcolor=firebrick, label=" both:1 < both:3 "];
  connector_2 -> connector_0 [style=dashed, color=firebrick, fontcolor=firebrick, label=" other < both:2 "];
  connector_0 -> connector_0 [style=dashed, color=firebrick, fontcolor=firebrick, label=" maximal "];
}
-- plant
# Every kind of part: blanks, comments and leading zeros are not drawn.
atom A
place p init
place q
var n 007
var m -9223372036854775808
port go m n
port back
trans go from p to q when && < n 3 ! m do n := + n 1 ; m := max n -1
trans back from q to p when 1
trans go from p q to q p

atom B_2
place s init
var k 0
port u k
trans u from s to s

connector both A.go' [ B_2.u ]'
guard <= A.n B_2.k
guard 1
move B_2.k := + A.n A.m
move A.m := 0
connector one	A.back
connector other B_2.u

prio one < both
prio both:1 < both:03
prio other < both:2
maximal both

== guards_and_transfers
Guards and transfers name variables by their atoms. Its text was written by hand after docs/COMMANDS.md.
$ draw plant
digraph plant {
  fontname="Helvetica";
  labelloc=b;
  nodesep=0.4;
  ranksep=0.6;
  node [fontname="Helvetica"];
  edge [fontname="Helvetica", fontsize=11];
  subgraph cluster_0 {
    label="A\nn = 0\nm = 0";
    place_0_0 [shape=circle, margin=0.03, style=filled, label="s"];
    port_0_0 [shape=ellipse, label="p m n"];
    transition_0_0 [shape=box, label="p/0"];
    port_0_0 -> transition_0_0 [style=dotted, arrowhead=none];
    place_0_0 -> transition_0_0;
    transition_0_0 -> place_0_0;
  }
  subgraph cluster_1 {
    label="B\nk = 0";
    place_1_0 [shape=circle, margin=0.03, style=filled, label="s"];
    port_1_0 [shape=ellipse, label="p k"];
    transition_1_0 [shape=box, label="p/0"];
    port_1_0 -> transition_1_0 [style=dotted, arrowhead=none];
    place_1_0 -> transition_1_0;
    transition_1_0 -> place_1_0;
  }
  connector_0 [shape=box, style="rounded,filled", fillcolor=lightyellow, label="c\n [ B.p ]' A.p \nguard < B.k 3\nguard ! A.m\nA.n := + B.k A.m\nB.k := 0"];
  connector_0 -> port_1_0 [arrowhead=dot];
  connector_0 -> port_0_0 [arrowhead=dot];
}
-- plant
atom A
place s init
var n 0
var m 0
port p m n
trans p from s to s
atom B
place s init
var k 0
port p k
trans p from s to s
connector c [ B.p ]' A.p
guard < B.k 3
guard ! A.m
move A.n := + B.k A.m
move B.k := 0

== missing_file
$ draw none.plant
! file none.plant
? 3

== names_that_dot_knows
Names of the plant that are words of dot's language, or as long as a name may be, stand in labels alone.
$ draw plant
digraph plant {
  fontname="Helvetica";
  labelloc=b;
  nodesep=0.4;
  ranksep=0.6;
  node [fontname="Helvetica"];
  edge [fontname="Helvetica", fontsize=11];
  subgraph cluster_0 {
    label="digraph\nn = 1";
    place_0_0 [shape=circle, margin=0.03, style=filled, label="node"];
    place_0_1 [shape=circle, margin=0.03, label="abcdefghijklmnopqrstuvwxyz_01234"];
    port_0_0 [shape=ellipse, label="edge n"];
    transition_0_0 [shape=box, label="edge/0"];
    port_0_0 -> transition_0_0 [style=dotted, arrowhead=none];
    place_0_0 -> transition_0_0;
    transition_0_0 -> place_0_1;
  }
  subgraph cluster_1 {
    label="strict";
    place_1_0 [shape=circle, margin=0.03, style=filled, label="label"];
    port_1_0 [shape=ellipse, label="N"];
    transition_1_0 [shape=box, label="N/0"];
    port_1_0 -> transition_1_0 [style=dotted, arrowhead=none];
    place_1_0 -> transition_1_0;
    transition_1_0 -> place_1_0;
  }
  connector_0 [shape=box, style="rounded,filled", fillcolor=lightyellow, label="subgraph\n digraph.edge strict.N' \nguard ! digraph.n"];
  connector_0 -> port_0_0 [arrowhead=dot];
  connector_0 -> port_1_0 [arrowhead=normal];
  connector_1 [shape=box, style="rounded,filled", fillcolor=lightyellow, label="graph\n strict.N "];
  connector_1 -> port_1_0 [arrowhead=dot];
  connector_1 -> connector_0 [style=dashed, color=firebrick, fontcolor=firebrick, label=" graph < subgraph "];
}
-- plant
atom digraph
place node init
place abcdefghijklmnopqrstuvwxyz_01234
var n 1
port edge n
trans edge from node to abcdefghijklmnopqrstuvwxyz_01234
atom strict
place label init
port N
trans N from label to label
connector subgraph digraph.edge strict.N'
guard ! digraph.n
connector graph strict.N
prio graph < subgraph

== nested_connector_with_rules
A connector is joined to its ports, also those in brackets, and a rule to its sides. Its text was written by hand after docs/COMMANDS.md.
$ draw plant
digraph plant {
  fontname="Helvetica";
  labelloc=b;
  nodesep=0.4;
  ranksep=0.6;
  node [fontname="Helvetica"];
  edge [fontname="Helvetica", fontsize=11];
  subgraph cluster_0 {
    label="A";
    place_0_0 [shape=circle, margin=0.03, style=filled, label="s"];
    port_0_0 [shape=ellipse, label="p"];
    transition_0_0 [shape=box, label="p/0"];
    port_0_0 -> transition_0_0 [style=dotted, arrowhead=none];
    place_0_0 -> transition_0_0;
    transition_0_0 -> place_0_0;
  }
  subgraph cluster_1 {
    label="B";
    place_1_0 [shape=circle, margin=0.03, style=filled, label="s"];
    port_1_0 [shape=ellipse, label="p"];
    transition_1_0 [shape=box, label="p/0"];
    port_1_0 -> transition_1_0 [style=dotted, arrowhead=none];
    place_1_0 -> transition_1_0;
    transition_1_0 -> place_1_0;
  }
  subgraph cluster_2 {
    label="C";
    place_2_0 [shape=circle, margin=0.03, style=filled, label="s"];
    port_2_0 [shape=ellipse, label="p"];
    port_2_1 [shape=ellipse, label="q"];
    transition_2_0 [shape=box, label="p/0"];
    port_2_0 -> transition_2_0 [style=dotted, arrowhead=none];
    place_2_0 -> transition_2_0;
    transition_2_0 -> place_2_0;
    transition_2_1 [shape=box, label="q/1"];
    port_2_1 -> transition_2_1 [style=dotted, arrowhead=none];
    place_2_0 -> transition_2_1;
    transition_2_1 -> place_2_0;
  }
  connector_0 [shape=box, style="rounded,filled", fillcolor=lightyellow, label="both\n [ A.p' [ B.p ] ]' C.q "];
  connector_0 -> port_0_0 [arrowhead=normal];
  connector_0 -> port_1_0 [arrowhead=dot];
  connector_0 -> port_2_1 [arrowhead=dot];
  connector_1 [shape=box, style="rounded,filled", fillcolor=lightyellow, label="one\n C.p "];
  connector_1 -> port_2_0 [arrowhead=dot];
  connector_0 -> connector_1 [style=dashed, color=firebrick, fontcolor=firebrick, label=" both < one "];
  connector_0 -> connector_0 [style=dashed, color=firebrick, fontcolor=firebrick, label=" both:1 < both:7 "];
  connector_0 -> connector_0 [style=dashed, color=firebrick, fontcolor=firebrick, label=" maximal "];
}
-- plant
atom A
place s init
port p
trans p from s to s
atom B
place s init
port p
trans p from s to s
atom C
place s init
port p
port q
trans p from s to s
trans q from s to s
connector both [ A.p' [ B.p ] ]' C.q
connector one C.p
prio both < one
prio both:1 < both:7
maximal both

== one_atom_alone
One atom is drawn, with the connector that joins it and the rules of that connector alone.
$ draw plant --only B
digraph plant {
  fontname="Helvetica";
  labelloc=b;
  nodesep=0.4;
  ranksep=0.6;
  node [fontname="Helvetica"];
  edge [fontname="Helvetica", fontsize=11];
  subgraph cluster_1 {
    label="B";
    place_1_0 [shape=circle, margin=0.03, style=filled, label="s"];
    port_1_0 [shape=ellipse, label="p"];
    transition_1_0 [shape=box, label="p/0"];
    port_1_0 -> transition_1_0 [style=dotted, arrowhead=none];
    place_1_0 -> transition_1_0;
    transition_1_0 -> place_1_0;
  }
  connector_0 [shape=box, style="rounded,filled", fillcolor=lightyellow, label="both\n [ A.p' [ B.p ] ]' C.q "];
  connector_0 -> port_1_0 [arrowhead=dot];
  connector_0 -> connector_0 [style=dashed, color=firebrick, fontcolor=firebrick, label=" both:1 < both:7 "];
  connector_0 -> connector_0 [style=dashed, color=firebrick, fontcolor=firebrick, label=" maximal "];
}
-- plant
atom A
place s init
port p
trans p from s to s
atom B
place s init
port p
trans p from s to s
atom C
place s init
port p
port q
trans p from s to s
trans q from s to s
connector both [ A.p' [ B.p ] ]' C.q
connector one C.p
prio both < one
prio both:1 < both:7
maximal both

== output_closed
@ standard output closed
$ draw examples/sample.plant
? 3

== output_full
@ standard output full
$ draw examples/sample.plant
? 3

== parts_behind_other_lines
A part belongs to the latest atom, or to the latest connector, whatever lines stand between.
$ draw plant
digraph plant {
  fontname="Helvetica";
  labelloc=b;
  nodesep=0.4;
  ranksep=0.6;
  node [fontname="Helvetica"];
  edge [fontname="Helvetica", fontsize=11];
  subgraph cluster_0 {
    label="A\nn = 0";
    place_0_0 [shape=circle, margin=0.03, style=filled, label="s"];
    port_0_0 [shape=ellipse, label="t n"];
    transition_0_0 [shape=box, label="t/0\nn := + n 1"];
    port_0_0 -> transition_0_0 [style=dotted, arrowhead=none];
    place_0_0 -> transition_0_0;
    transition_0_0 -> place_0_0;
  }
  subgraph cluster_1 {
    label="B\nm = 0";
    place_1_0 [shape=circle, margin=0.03, style=filled, label="s"];
    place_1_1 [shape=circle, margin=0.03, label="p"];
    port_1_0 [shape=ellipse, label="u m"];
    transition_1_0 [shape=box, label="u/0"];
    port_1_0 -> transition_1_0 [style=dotted, arrowhead=none];
    place_1_0 -> transition_1_0;
    transition_1_0 -> place_1_0;
  }
  connector_0 [shape=box, style="rounded,filled", fillcolor=lightyellow, label="tick\n A.t "];
  connector_0 -> port_0_0 [arrowhead=dot];
  connector_1 [shape=box, style="rounded,filled", fillcolor=lightyellow, label="send\n A.t B.u \nguard A.n\nB.m := A.n"];
  connector_1 -> port_0_0 [arrowhead=dot];
  connector_1 -> port_1_0 [arrowhead=dot];
}
-- plant = examples/sample.plant and
place p
guard A.n

== refused_plant
$ draw -
< atom A
< atom A
! plant line 2: fault 6 Twice
? 1

== standard_input
$ draw -
< atom A
< place s init
< var n 0
< port t n
< trans t from s to s do n := + n 1
< atom B
< place s init
< var m 0
< port u m
< trans u from s to s
< connector tick A.t
< connector send A.t B.u
< move B.m := A.n
digraph plant {
  fontname="Helvetica";
  labelloc=b;
  nodesep=0.4;
  ranksep=0.6;
  node [fontname="Helvetica"];
  edge [fontname="Helvetica", fontsize=11];
  subgraph cluster_0 {
    label="A\nn = 0";
    place_0_0 [shape=circle, margin=0.03, style=filled, label="s"];
    port_0_0 [shape=ellipse, label="t n"];
    transition_0_0 [shape=box, label="t/0\nn := + n 1"];
    port_0_0 -> transition_0_0 [style=dotted, arrowhead=none];
    place_0_0 -> transition_0_0;
    transition_0_0 -> place_0_0;
  }
  subgraph cluster_1 {
    label="B\nm = 0";
    place_1_0 [shape=circle, margin=0.03, style=filled, label="s"];
    port_1_0 [shape=ellipse, label="u m"];
    transition_1_0 [shape=box, label="u/0"];
    port_1_0 -> transition_1_0 [style=dotted, arrowhead=none];
    place_1_0 -> transition_1_0;
    transition_1_0 -> place_1_0;
  }
  connector_0 [shape=box, style="rounded,filled", fillcolor=lightyellow, label="tick\n A.t "];
  connector_0 -> port_0_0 [arrowhead=dot];
  connector_1 [shape=box, style="rounded,filled", fillcolor=lightyellow, label="send\n A.t B.u \nB.m := A.n"];
  connector_1 -> port_0_0 [arrowhead=dot];
  connector_1 -> port_1_0 [arrowhead=dot];
}
