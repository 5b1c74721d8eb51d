# Shows each signal with the name of its instance, and saves a picture of the window to /tmp/crossing.png.
gtkwave::/Edit/Set_Trace_Max_Hier 2
gtkwave::/File/Grab_To_File /tmp/crossing.png
gtkwave::/File/Quit
