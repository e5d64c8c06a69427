with Ada.Text_IO;
procedure Main is
procedure Flip (B : in out Boolean) is begin B := not B; end Flip;
Done : Boolean := False;
begin
while not Done loop Ada.Text_IO.Put_Line ("turn"); Flip (Done); end loop;
end Main;
