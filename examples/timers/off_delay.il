(* A TOF of four seconds: the second inverter may give power while the first one gives 1 kW or more, and for four seconds
   after that, which count from the first scan without that power. *)
PROGRAM off_delay
VAR_EXTERNAL
  dt, power, percent : DINT;
  enable : BOOL;
END_VAR
VAR
  sun : BOOL;                  (* the first inverter gives 1 kW or more; that it did in the scan before *)
  left : DINT (0..4000);       (* the milliseconds that are left; 0 before the first sun *)
END_VAR
  LD left                      (* left := MAX(left - SEL(sun, dt, 0), 0); *)
  SUB( sun
    SEL dt, 0
  )
  MAX 0
  ST left
  LD FALSE                     (* sun := power_OK AND power >= 1000; *)
  ST sun
  LD power_OK
  JMPCN tell
  LD power
  GE 1000
  ST sun
tell:
  LD sun                       (* left := SEL(sun, left, 4000); *)
  SEL left, 4000
  ST left
  GT 0                         (* percent := SEL(left > 0, 0, 100); *)
  SEL DINT#0, 100
  ST percent
  LD TRUE
  ST enable
END_PROGRAM
