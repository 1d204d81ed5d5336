(* Lets the inverter of 10 kW give what is used at the site and what may be fed in, less 50 W, which are drawn in any case.
   Its limit falls at once and rises by at most 5 percent of the 10 kW in a second. Where the meter or the inverter can't
   be read nothing is known of the site: then it gives nothing. *)
PROGRAM zero_export
VAR_EXTERNAL
  grid, own, since, feed_in : DINT;
  ceiling : DINT;
  enable : BOOL;
END_VAR
VAR
  room : DINT (0..42000);      (* watts that the inverter may give *)
  wanted : DINT (0..1000);     (* the same in tenths of a percent of 10 kW *)
  given : DINT (0..1000);      (* what it was told last *)
END_VAR
  LD 0
  ST wanted
  LD grid_OK
  AND own_OK
  JMPCN follow
  LD grid                      (* what is drawn and what is given is what is used *)
  ADD own
  SUB 50
  ADD( feed_in
  MUL 100
  )
  LIMIT 0, 42000
  ST room
  DIV 10
  MIN 1000
  ST wanted
follow:
  LD since
  DIV 20                       (* 50 tenths of a percent in a second *)
  ADD given
  MIN wanted
  ST given
  ST ceiling
  LD TRUE
  ST enable
END_PROGRAM
