(* Lets a battery of 3 kW give what the site draws from the grid, and take what the site would feed in. What the meter
   shows and what the battery gives now make together what it is to give. At 10 percent of charge or less it isn't
   discharged, at 95 percent or more it isn't charged, and where a number is missing it rests. *)
PROGRAM battery
VAR_EXTERNAL
  grid, own, charge : DINT;
  out_rate, in_rate : DINT;
  modes : INT;
END_VAR
VAR
  wanted : DINT (-3000..3000);   (* watts that the battery is to give; below 0 it is charged *)
END_VAR
  LD 0
  ST wanted
  LD grid_OK
  AND own_OK
  AND charge_OK
  JMPCN tell
  LD grid
  ADD own
  MIN 3000
  MAX -3000
  ST wanted
  LD charge
  GT 10
  JMPC enough
  LD wanted
  MIN 0
  ST wanted
enough:
  LD charge
  LT 95
  JMPC tell
  LD wanted
  MAX 0
  ST wanted
tell:
  LD wanted                      (* the limit of discharging, in tenths of a percent of 3 kW *)
  MUL 1000
  DIV 3000
  ST out_rate
  LD 0                           (* that of charging is the same below 0, so nothing else is left *)
  SUB wanted
  MUL 1000
  DIV 3000
  ST in_rate
  LD INT#3                       (* both limits hold *)
  ST modes
END_PROGRAM
