(* A TON of four seconds: the second inverter may give power once the first one has given 1 kW or more for so long. The
   time counts from the first scan with that power, and begins anew where it falls below, or can't be read. *)
PROGRAM on_delay
VAR_EXTERNAL
  dt, power, percent : DINT;
  enable : BOOL;
END_VAR
VAR
  sun : BOOL;                  (* the first inverter gives 1 kW or more; that it did in the scan before *)
  held : DINT (0..4000);       (* the milliseconds for which it has done so *)
END_VAR
  LD sun                       (* held := MIN(held + SEL(sun, 0, dt), 4000); *)
  SEL 0, dt
  ADD held
  MIN 4000
  ST held
  LD FALSE                     (* sun := power_OK AND power >= 1000; *)
  ST sun
  LD power_OK
  JMPCN tell
  LD power
  GE 1000
  ST sun
tell:
  LD sun                       (* held := SEL(sun, 0, held); *)
  SEL 0, held
  ST held
  GE 4000                      (* percent := SEL(held >= 4000, 0, 100); *)
  SEL DINT#0, 100
  ST percent
  LD TRUE
  ST enable
END_PROGRAM
