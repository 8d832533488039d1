(* Battery packs, one station: the torque of each screw, the packs done in
   this shift, and whether the line may go on.
   torque is in hundredths of a newton metre, gap in hundredths of a millimetre. *)
VAR_INPUT
    torque : INT;
    gap : INT;
    screws : INT;
    door : BOOL;
END_VAR
VAR_OUTPUT
    mean : INT;
    go : BOOL;
    done : INT;
END_VAR
VAR
    limit : INT := 450;
    sum : INT;
END_VAR

LD door
JMPCN open
LD torque
ADD sum
ST sum
DIV screws            (* screws is never 0 in its range *)
ST mean
GT limit
STN go
LD gap
LE 25
AND go
ST go
JMPCN out
LD done
ADD 1
ST done
JMP out

open:                 (* nothing moves while the door is open *)
LD FALSE
ST go

out:
LD 0
ST sum
RET
