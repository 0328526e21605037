with Ada.Text_IO;
procedure Apples is
	Small : Natural := -1;
begin
   null;
end Apples;
