with Ada.Text_IO;
procedure Main is
procedure Fail (N : in out Integer) is
begin N := 1 / (N - N);
exception when others => N := 9; raise Program_Error;
end Fail;
X : Integer := 3;
begin Fail (X);
exception when Program_Error => Ada.Text_IO.Put_Line (Integer'Image (X));
end Main;
