(* Points with a motor. A button drives them to its side, until they are detected there. They are driven only while no train
   is on them, and no further once they failed: where the current says that they are blocked, or where they weren't detected
   in three cycles of driving. points.st says the same in Structured Text. *)
PROGRAM Points
VAR_INPUT
  left, right : BOOL;         // the buttons
  at_left, at_right : BOOL;   // the detectors
  clear : BOOL;               // no train is on the points
  reset : BOOL;               // the maintainer's button
  current : INT;              // of the motor, in hundredths of an ampere
END_VAR
VAR_OUTPUT
  to_left, to_right : BOOL;   // the motor
  failed : BOOL;
END_VAR
VAR
  driven : BOOL;              // now; and for one, two and three cycles
  for_1, for_2, for_3 : BOOL;
END_VAR

// a failure is kept; what says that there is one comes after the reset, and so goes before it
LD reset
R failed
LD current
GT 900
OR for_3
S failed

// the left side: asked for by its button, and held
LD left
OR to_left
ANDN right
ANDN at_left
AND clear
ANDN failed
ST to_left

// the right side
LD right
OR to_right
ANDN left
ANDN at_right
AND clear
ANDN failed
ST to_right

// for how many cycles they have been driven
LD to_left
OR to_right
ST driven
AND for_2
ST for_3
LD driven
AND for_1
ST for_2
LD driven
ST for_1
END_PROGRAM
