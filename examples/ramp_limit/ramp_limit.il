(* Lets the inverter's power rise by at most RISE watts from scan to scan: each scan sets its limit to what it gives
   now and RISE watts more. The limit is told in tenths of a percent of its greatest power, rounded down. The power may
   fall as it likes, since the sun does that. Where a number is missing, the last limit stays. *)
PROGRAM ramp_limit
VAR_EXTERNAL
  power, greatest, rise : DINT;
  most, told : DINT;
  enable : BOOL;
END_VAR
VAR
  permille : DINT (0..1000);   (* the limit; 0 before the first scan *)
END_VAR
  LD power_OK
  AND greatest_OK
  JMPCN tell
  LD power
  MAX 0
  ADD rise
  MUL 1000
  DIV greatest
  MIN 1000
  ST permille
tell:
  LD permille
  ST most
  ST told
  LD TRUE
  ST enable
END_PROGRAM
