with Ada.Text_IO;
procedure Main is
   type Cell is record
      A : Integer := 0;
      B : Integer := 0;
   end record;
   type Link is access Cell;
   P : Link := new Cell'(1, 2);
begin
   declare
      type Cell is record
         B : Integer := 0;
         A : Integer := 0;
      end record;
      type Link is access Cell;
      Q : Link := new Cell'(1, 2);
   begin
      Ada.Text_IO.Put_Line (Integer'Image (P.A * 10 + Q.A));
   end;
end Main;
