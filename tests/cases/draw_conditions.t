`draw`: rules that count while an atom is at a place.

== condition_of_an_atom_that_is_not_drawn
Low and high are drawn, and so is their rule, with a condition of an atom that is not. Turn is not drawn, nor is its rule.
$ draw plant --only L
digraph plant {
  fontname="Helvetica";
  labelloc=b;
  nodesep=0.4;
  ranksep=0.6;
  node [fontname="Helvetica"];
  edge [fontname="Helvetica", fontsize=11];
  subgraph cluster_1 {
    label="L";
    place_1_0 [shape=circle, margin=0.03, style=filled, label="s"];
    port_1_0 [shape=ellipse, label="l"];
    port_1_1 [shape=ellipse, label="h"];
    transition_1_0 [shape=box, label="l/0"];
    port_1_0 -> transition_1_0 [style=dotted, arrowhead=none];
    place_1_0 -> transition_1_0;
    transition_1_0 -> place_1_0;
    transition_1_1 [shape=box, label="h/1"];
    port_1_1 -> transition_1_1 [style=dotted, arrowhead=none];
    place_1_0 -> transition_1_1;
    transition_1_1 -> place_1_0;
  }
  connector_1 [shape=box, style="rounded,filled", fillcolor=lightyellow, label="low\n L.l "];
  connector_1 -> port_1_0 [arrowhead=dot];
  connector_2 [shape=box, style="rounded,filled", fillcolor=lightyellow, label="high\n L.h "];
  connector_2 -> port_1_1 [arrowhead=dot];
  connector_1 -> connector_2 [style=dashed, color=firebrick, fontcolor=firebrick, label=" low < high when A at on "];
}
-- plant
atom A
place on init
place off
port t
trans t from on to off
atom L
place s init
port l
port h
trans l from s to s
trans h from s to s
connector turn A.t
connector low L.l
connector high L.h
prio low < high when A at on
prio low < turn when A at off

== rule_with_a_condition
The edge of a rule has its condition too.
$ draw plant
digraph plant {
  fontname="Helvetica";
  labelloc=b;
  nodesep=0.4;
  ranksep=0.6;
  node [fontname="Helvetica"];
  edge [fontname="Helvetica", fontsize=11];
  subgraph cluster_0 {
    label="A";
    place_0_0 [shape=circle, margin=0.03, style=filled, label="on"];
    place_0_1 [shape=circle, margin=0.03, label="off"];
    port_0_0 [shape=ellipse, label="t"];
    transition_0_0 [shape=box, label="t/0"];
    port_0_0 -> transition_0_0 [style=dotted, arrowhead=none];
    place_0_0 -> transition_0_0;
    transition_0_0 -> place_0_1;
    transition_0_1 [shape=box, label="t/1"];
    port_0_0 -> transition_0_1 [style=dotted, arrowhead=none];
    place_0_1 -> transition_0_1;
    transition_0_1 -> place_0_0;
  }
  subgraph cluster_1 {
    label="O";
    place_1_0 [shape=circle, margin=0.03, style=filled, label="s"];
    port_1_0 [shape=ellipse, label="o"];
    transition_1_0 [shape=box, label="o/0"];
    port_1_0 -> transition_1_0 [style=dotted, arrowhead=none];
    place_1_0 -> transition_1_0;
    transition_1_0 -> place_1_0;
  }
  connector_0 [shape=box, style="rounded,filled", fillcolor=lightyellow, label="tick\n A.t "];
  connector_0 -> port_0_0 [arrowhead=dot];
  connector_1 [shape=box, style="rounded,filled", fillcolor=lightyellow, label="other\n O.o "];
  connector_1 -> port_1_0 [arrowhead=dot];
  connector_1 -> connector_0 [style=dashed, color=firebrick, fontcolor=firebrick, label=" other < tick when A at on "];
}
-- plant
atom A
place on init
place off
port t
trans t from on to off
trans t from off to on
atom O
place s init
port o
trans o from s to s
connector tick A.t
connector other O.o
prio other < tick when A at on

== where_a_condition_does_not_hold
A is off: the rule is drawn all the same, and both connectors are green.
$ draw plant --after 0
digraph plant {
  fontname="Helvetica";
  labelloc=b;
  nodesep=0.4;
  ranksep=0.6;
  node [fontname="Helvetica"];
  edge [fontname="Helvetica", fontsize=11];
  subgraph cluster_0 {
    label="A";
    place_0_0 [shape=circle, margin=0.03, label="on"];
    place_0_1 [shape=circle, margin=0.03, style=filled, label="off"];
    port_0_0 [shape=ellipse, label="t"];
    transition_0_0 [shape=box, label="t/0"];
    port_0_0 -> transition_0_0 [style=dotted, arrowhead=none];
    place_0_0 -> transition_0_0;
    transition_0_0 -> place_0_1;
    transition_0_1 [shape=box, label="t/1"];
    port_0_0 -> transition_0_1 [style=dotted, arrowhead=none];
    place_0_1 -> transition_0_1;
    transition_0_1 -> place_0_0;
  }
  subgraph cluster_1 {
    label="O";
    place_1_0 [shape=circle, margin=0.03, style=filled, label="s"];
    port_1_0 [shape=ellipse, label="o"];
    transition_1_0 [shape=box, label="o/0"];
    port_1_0 -> transition_1_0 [style=dotted, arrowhead=none];
    place_1_0 -> transition_1_0;
    transition_1_0 -> place_1_0;
  }
  connector_0 [shape=box, style="rounded,filled", fillcolor=palegreen, label="tick\n A.t "];
  connector_0 -> port_0_0 [arrowhead=dot];
  connector_1 [shape=box, style="rounded,filled", fillcolor=palegreen, label="other\n O.o "];
  connector_1 -> port_1_0 [arrowhead=dot];
  connector_1 -> connector_0 [style=dashed, color=firebrick, fontcolor=firebrick, label=" other < tick when A at on "];
}
-- plant
atom A
place on init
place off
port t
trans t from on to off
trans t from off to on
atom O
place s init
port o
trans o from s to s
connector tick A.t
connector other O.o
prio other < tick when A at on

== while_a_condition_holds
A is on again behind two ticks: other gives way, so it is not green.
$ draw plant --after 0 0
digraph plant {
  fontname="Helvetica";
  labelloc=b;
  nodesep=0.4;
  ranksep=0.6;
  node [fontname="Helvetica"];
  edge [fontname="Helvetica", fontsize=11];
  subgraph cluster_0 {
    label="A";
    place_0_0 [shape=circle, margin=0.03, style=filled, label="on"];
    place_0_1 [shape=circle, margin=0.03, label="off"];
    port_0_0 [shape=ellipse, label="t"];
    transition_0_0 [shape=box, label="t/0"];
    port_0_0 -> transition_0_0 [style=dotted, arrowhead=none];
    place_0_0 -> transition_0_0;
    transition_0_0 -> place_0_1;
    transition_0_1 [shape=box, label="t/1"];
    port_0_0 -> transition_0_1 [style=dotted, arrowhead=none];
    place_0_1 -> transition_0_1;
    transition_0_1 -> place_0_0;
  }
  subgraph cluster_1 {
    label="O";
    place_1_0 [shape=circle, margin=0.03, style=filled, label="s"];
    port_1_0 [shape=ellipse, label="o"];
    transition_1_0 [shape=box, label="o/0"];
    port_1_0 -> transition_1_0 [style=dotted, arrowhead=none];
    place_1_0 -> transition_1_0;
    transition_1_0 -> place_1_0;
  }
  connector_0 [shape=box, style="rounded,filled", fillcolor=palegreen, label="tick\n A.t "];
  connector_0 -> port_0_0 [arrowhead=dot];
  connector_1 [shape=box, style="rounded,filled", fillcolor=lightyellow, label="other\n O.o "];
  connector_1 -> port_1_0 [arrowhead=dot];
  connector_1 -> connector_0 [style=dashed, color=firebrick, fontcolor=firebrick, label=" other < tick when A at on "];
}
-- plant
atom A
place on init
place off
port t
trans t from on to off
trans t from off to on
atom O
place s init
port o
trans o from s to s
connector tick A.t
connector other O.o
prio other < tick when A at on
