(* Disconnects the inverter at night. Three scans in a row with under 20 W are night: then it is disconnected for five
   scans. After that it is connected again for a try: where it still gives under 20 W, it is disconnected for five more.
   Where it can't be read, all stays as it is. While the grid operator doesn't allow it, it isn't connected. *)
PROGRAM night_standby
VAR_EXTERNAL
  power : DINT;
  connect, allowed : BOOL;
  state : INT;
END_VAR
VAR
  dark : INT (0..3);           (* scans in a row with too little power *)
  rest : INT (0..5);           (* scans that it is still to be disconnected *)
END_VAR
  LD rest
  GT 0
  JMPC resting
  LD power_OK
  JMPCN tell
  LD power
  GE 20
  JMPC light
  LD dark
  ADD 1
  MIN 3
  ST dark
  LT 3
  JMPC tell
  LD 5
  ST rest
  JMP tell
light:
  LD 0
  ST dark
  JMP tell
resting:
  LD rest
  SUB 1
  ST rest
tell:
  LD rest
  EQ 0
  AND allowed
  ST connect
  SEL INT#8, 4                 (* standby, or producing *)
  ST state
END_PROGRAM
