PROGRAM average
VAR
  first : INT := 40;
  second : INT := 25;
  mean : INT;
  rest : INT;
END_VAR
  (* the mean of two readings, and what the division leaves *)
  LD first
  ADD second
  DIV 2
  ST mean
  LD first
  ADD second
  MOD 2
  ST rest
END_PROGRAM
