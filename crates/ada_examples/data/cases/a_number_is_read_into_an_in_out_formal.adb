with Ada.Text_IO; with Run_Input;
procedure Main is
procedure Read (N : in out Integer) is begin Run_Input.Get (N); exception when Run_Input.End_Error => N := 0; end Read;
X : Integer := 1; Sum : Integer := 0;
begin
while X /= 0 loop Read (X); Sum := Sum + X; end loop;
Ada.Text_IO.Put_Line (Integer'Image (Sum));
end Main;
