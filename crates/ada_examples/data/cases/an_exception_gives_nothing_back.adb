with Ada.Text_IO;
procedure Main is
procedure Fail (N : in out Integer) is begin N := 5; raise Program_Error; end Fail;
X : Integer := 1;
begin
begin Fail (X); exception when Program_Error => Ada.Text_IO.Put_Line (Integer'Image (X)); end;
Ada.Text_IO.Put_Line (Integer'Image (X));
end Main;
