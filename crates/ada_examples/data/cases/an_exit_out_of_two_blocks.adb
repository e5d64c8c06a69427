with Ada.Text_IO;
procedure Main is
   N : Integer := 0;
begin
   loop
      begin
         declare
            M : Integer := N + 1;
         begin
            N := M;
            exit when M = 3;
         end;
      end;
   end loop;
   Ada.Text_IO.Put_Line (Integer'Image (N));
end Main;
