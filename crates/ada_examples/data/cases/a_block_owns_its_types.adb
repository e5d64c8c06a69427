with Ada.Text_IO;
procedure Main is
begin
   for I in 1 .. 3 loop
      declare
         type Cell is record
            Value : Integer := 0;
            Twice : Integer := 0;
         end record;
         type Link is access Cell;
         A : Link := new Cell'(Value => I, Twice => 2 * I);
      begin
         Ada.Text_IO.Put_Line (Integer'Image (A.Twice));
      end;
   end loop;
end Main;
