(* A run of four seconds at least: the second inverter may give power while the first one gives 1 kW or more; once it may,
   it may for four seconds. *)
PROGRAM least_run
VAR_EXTERNAL
  dt, power, percent : DINT;
  enable : BOOL;
END_VAR
VAR
  runs : BOOL;                 (* the second inverter may give power *)
  ran : DINT (0..4000);        (* the milliseconds for which it may, four seconds at most; 0 where it may not *)
END_VAR
  LD runs                      (* ran := MIN(ran + SEL(runs, 0, dt), 4000); *)
  SEL 0, dt
  ADD ran
  MIN 4000
  ST ran
  LT 4000                      (* runs := runs AND ran < 4000; *)
  AND runs
  ST runs
  LD power_OK                  (* IF power_OK AND power >= 1000 THEN runs := TRUE; END_IF; *)
  JMPCN tell
  LD power
  GE 1000
  S runs
tell:
  LD runs                      (* ran := SEL(runs, 0, ran); *)
  SEL 0, ran
  ST ran
  LD runs                      (* percent := SEL(runs, 0, 100); *)
  SEL DINT#0, 100
  ST percent
  LD TRUE
  ST enable
END_PROGRAM
