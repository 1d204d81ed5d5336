(* Keeps two inverters of 5 kW under 6 kW together: the first may give what the second leaves. Where the second isn't
   known, its last power stands in for one scan; after that it is taken to give its 5 kW, so the first falls back to
   1 kW. A read in time ends that. *)
PROGRAM device_lost
VAR_EXTERNAL
  power1, power2 : DINT;
  limit1, told : DINT;
  enable1 : BOOL;
  state : INT;
END_VAR
VAR
  last : DINT (0..5000) := 5000;   (* what the second inverter is taken to give *)
  lost : INT (0..2);               (* scans in a row without its power *)
END_VAR
  LD power2_OK
  JMPC known
  LD lost
  ADD 1
  MIN 2
  ST lost
  LT 2
  JMPC tell
  LD 5000
  ST last
  JMP tell
known:
  LD power2
  MAX 0
  MIN 5000
  ST last
  LD 0
  ST lost
tell:
  LD 6000
  SUB last
  MUL 1000
  DIV 5000
  MIN 1000
  ST limit1
  ST told
  LD TRUE
  ST enable1
  LD power1_OK
  AND power2_OK
  SEL INT#7, 4
  ST state
END_PROGRAM
