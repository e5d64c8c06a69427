with Ada.Text_IO;
procedure Main is
procedure Fail (N : in out Integer) is
begin N := 5; raise Program_Error;
exception when others => N := N + 2;
end Fail;
X : Integer := 1;
begin Fail (X); Ada.Text_IO.Put_Line (Integer'Image (X)); end Main;
