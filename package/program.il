(* The program of this gateway, in Instruction List: it hands the limit that clients set on to both inverters, and adds up
   their power. It is run once a second. After a change, before a restart of the service:
   sunsite check /etc/sunsite/site.toml /etc/sunsite/program.il *)
PROGRAM site
VAR_EXTERNAL                      (* tags of the site file that the program loads or stores *)
  inv1_w, inv2_w : DINT;
  target, lim1, lim2 : INT;
  ena1, ena2 : BOOL;
END_VAR
VAR                               (* variables keep their value from scan to scan; the status file has them *)
  total : DINT (-2000..32000) := 0;
END_VAR
  LD inv1_w_OK                    (* an inverter may not answer: then the total stays as it was *)
  AND inv2_w_OK
  JMPCN hand_on
  LD inv1_w
  ADD inv2_w
  ST total
hand_on:
  LD target
  ST lim1
  ST lim2
  LD TRUE
  ST ena1
  ST ena2
END_PROGRAM
