(* Holds the plant's power under the limit that clients set, in percent of the plant's greatest power. Each inverter
   gets a share of the allowed watts as large as its share of what both could give now. Its limit is told in tenths of
   a percent of its own greatest power, rounded down. Where a number is missing, each gets the clients' percentage
   itself, which keeps the plant under the limit too. *)
PROGRAM shared_limit
VAR_EXTERNAL
  can1, can2, greatest1, greatest2, target : DINT;
  limit1, limit2, greatest : DINT;
  enable1, enable2 : BOOL;
END_VAR
VAR
  allowed : DINT (0..40000);   (* watts that the plant may give *)
  all : DINT (0..40000);       (* watts that both inverters could give *)
  share : DINT (0..40000);
END_VAR
  LD TRUE
  ST enable1
  ST enable2
  LD greatest1_OK
  AND greatest2_OK
  AND can1_OK
  AND can2_OK
  JMPCN alike
  LD greatest1
  ADD greatest2
  ST greatest
  MUL target
  DIV 100
  ST allowed
  LD can1
  ADD can2
  ST all
  EQ 0
  JMPC alike
  LD allowed                   (* the first inverter's share, in watts and then in tenths of a percent *)
  MUL can1
  DIV all
  MIN 40000
  ST share
  MUL 1000
  DIV greatest1
  MIN 1000
  ST limit1
  LD allowed
  MUL can2
  DIV all
  MIN 40000
  ST share
  MUL 1000
  DIV greatest2
  MIN 1000
  ST limit2
  RET
alike:
  LD target
  MUL 10
  ST limit1
  ST limit2
END_PROGRAM
