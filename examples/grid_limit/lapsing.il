(* Keeps two inverters under the limit of the grid operator, in percent. Where that has lapsed, or was never there, 30
   percent is the most that is given; a lower limit stays. *)
PROGRAM lapsing
VAR_EXTERNAL
  target, limit1, limit2 : DINT;
  enable1, enable2 : BOOL;
END_VAR
VAR
  percent : DINT (0..100) := 30;
END_VAR
  LD target_OK
  JMPC heard
  LD percent
  MIN 30                         (* a lower limit of the operator stays *)
  JMP tell
heard:
  LD target
tell:
  ST percent
  ST limit1
  ST limit2
  LD TRUE
  ST enable1
  ST enable2
END_PROGRAM
