(* A TP of four seconds: each time that the first inverter comes to 1 kW, the second one may give power for four seconds,
   whatever the first one gives meanwhile. *)
PROGRAM pulse
VAR_EXTERNAL
  dt, power, percent : DINT;
  enable : BOOL;
END_VAR
VAR
  sun, was : BOOL;             (* the first inverter gives 1 kW or more; that it did in the scan before *)
  left : DINT (0..4000);       (* the milliseconds of the pulse that are left *)
END_VAR
  LD left                      (* left := MAX(left - dt, 0); *)
  SUB dt
  MAX 0
  ST left
  LD sun                       (* was := sun; *)
  ST was
  LD FALSE                     (* sun := power_OK AND power >= 1000; *)
  ST sun
  LD power_OK
  JMPCN rise
  LD power
  GE 1000
  ST sun
rise:
  LD left                      (* left := SEL(left = 0 AND sun AND NOT was, left, 4000); *)
  EQ 0
  AND sun
  ANDN was
  SEL left, 4000
  ST left
  GT 0                         (* percent := SEL(left > 0, 0, 100); *)
  SEL DINT#0, 100
  ST percent
  LD TRUE
  ST enable
END_PROGRAM
