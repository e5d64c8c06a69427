with Ada.Text_IO; with Run_Input;
procedure Main is
N : Integer := 0;
begin
loop
Run_Input.Get (N);
Ada.Text_IO.Put_Line (Integer'Image (N));
end loop;
exception
when Run_Input.End_Error => Ada.Text_IO.Put_Line ("no more");
end Main;
