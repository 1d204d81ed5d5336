(* Sets the inverter's reactive power by a table of voltages, in percent of its greatest:

     up to 211.6 V   44 %
           225.4 V    0 %
           234.6 V    0 %
     from  248.4 V  -44 %

   Between two rows the percentage lies on the line between theirs. The voltage is the mean of the three phases; where
   one is missing, the percentage is 0. Voltages are in tenths of a volt, percentages in tenths of a percent. *)
PROGRAM volt_var
VAR_EXTERNAL
  volts_a, volts_b, volts_c : DINT;
  percent, mean, told : DINT;
  mode : INT;
  enable : BOOL;
END_VAR
VAR
  volts : DINT (0..4000);
  from : DINT (0..4000);           (* the row's voltage and percentage *)
  start : DINT (-440..440);
  width : DINT (1..1000) := 1;     (* how far the next row is, and how much its percentage differs *)
  change : DINT (-880..880);
  result : DINT (-440..440);
END_VAR
  LD volts_a_OK
  AND volts_b_OK
  AND volts_c_OK
  JMPCN missing
  LD volts_a
  ADD volts_b
  ADD volts_c
  DIV 3
  ST volts
  ST mean

  (* 211.6 V to 225.4 V: 44 % to 0 % *)
  LD 2116
  ST from
  LD 440
  ST start
  LD 138
  ST width
  LD -440
  ST change
  LD volts
  LT 2254
  JMPC between

  (* 225.4 V to 234.6 V: 0 % *)
  LD 2254
  ST from
  LD 0
  ST start
  LD 92
  ST width
  LD 0
  ST change
  LD volts
  LT 2346
  JMPC between

  (* 234.6 V to 248.4 V: 0 % to -44 % *)
  LD 2346
  ST from
  LD 0
  ST start
  LD 138
  ST width
  LD -440
  ST change

between:
  LD volts                         (* how far into the row, from 0 to its width *)
  SUB from
  MAX 0
  MIN width
  MUL change
  DIV width
  ADD start
  MAX -440
  MIN 440
  ST result
  JMP tell
missing:
  LD 0
  ST result
tell:
  LD result
  ST percent
  ST told
  LD 2
  ST mode
  LD TRUE
  ST enable
END_PROGRAM
