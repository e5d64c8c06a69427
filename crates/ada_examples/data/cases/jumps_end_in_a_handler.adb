with Ada.Text_IO;
procedure Main is
N : Integer := 0;
begin
loop
N := N + 1;
if N = 3 then raise Constraint_Error; end if;
end loop;
exception
when others =>
while N > 0 loop
N := N - 1;
exit when N = 1;
end loop;
Ada.Text_IO.Put_Line (Integer'Image (N));
end Main;
