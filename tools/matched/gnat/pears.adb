with Ada.Text_IO;
procedure Pears is
   Weight : Integer := "one";
	Unused : Integer := 1;
begin
	Ada.Text_IO.Put_Line ("é" & Wieght);
end Pears;
