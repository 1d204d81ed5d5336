(* Keeps two inverters of 5 kW under the limit of the grid operator, in percent of 10 kW. The operator counts a number up
   as a sign of life: where it stays as it is for five scans, 30 percent is the most that is given until it changes again.
   One inverter is cut only after the other gives nothing more; which one is cut first changes every eight scans. *)
PROGRAM grid_limit
VAR_EXTERNAL
  target, beat : DINT;
  limit1, limit2, allowed, pulse : DINT;
  enable1, enable2 : BOOL;
  state : INT;
END_VAR
VAR
  heard : DINT;                  (* the operator's number in the last scan *)
  silent : INT (0..5);           (* scans since it changed *)
  percent : DINT (0..100);       (* what may be given, of 10 kW *)
  turn : DINT (0..15);           (* the scan of the two turns *)
  kept, cut : DINT (0..1000);    (* tenths of a percent for each inverter: the one that is cut last, and first *)
  count : DINT (0..59999);
END_VAR
  LD beat_OK
  JMPCN mute
  LD beat
  EQ heard
  JMPC mute
  LD beat
  ST heard
  LD 0
  ST silent
  JMP choose
mute:
  LD silent
  ADD 1
  MIN 5
  ST silent
choose:
  LD silent
  LT 5
  SEL 30, 100
  MIN target                     (* a lower limit of the operator stays *)
  ST percent
  MUL 100
  ST allowed
  LD percent
  MUL 20                         (* tenths of a percent that both have together *)
  MIN 1000
  ST kept
  LD percent
  MUL 20
  SUB 1000
  MAX 0
  ST cut
  LD turn
  LT 8
  SEL cut, kept
  ST limit1
  LD turn
  LT 8
  SEL kept, cut
  ST limit2
  LD TRUE
  ST enable1
  ST enable2
  LD turn
  ADD 1
  MOD 16
  ST turn
  LD silent
  LT 5
  SEL INT#7, 4
  ST state
  LD count                       (* a sign of life of the plant's own *)
  ADD 1
  MOD 60000
  ST count
  ST pulse
END_PROGRAM
