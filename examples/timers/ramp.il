(* A ramp of five percent a second: the second inverter's limit goes toward what clients set. It is counted in thousandths
   of a percent, of which five in a millisecond are five percent in a second. *)
PROGRAM ramp
VAR_EXTERNAL
  dt, target, percent : DINT;
  enable : BOOL;
END_VAR
VAR
  step : DINT (0..50000);          (* how far it may go in this scan *)
  goal : DINT (0..100000);         (* where it is to go *)
  least : DINT (-50000..100000);   (* how low it may be in this scan *)
  now : DINT (0..100000);          (* where it is; 0 before the first scan *)
END_VAR
  LD dt                        (* step := 5 * dt; *)
  MUL 5
  ST step
  LD target                    (* goal := 1000 * target; *)
  MUL 1000
  ST goal
  LD now                       (* least := now - step; *)
  SUB step
  ST least
  LD now                       (* now := LIMIT(least, goal, now + step); *)
  ADD step
  MIN goal
  MAX least
  ST now
  DIV 1000                     (* percent := now / 1000; *)
  ST percent
  LD TRUE
  ST enable
END_PROGRAM
