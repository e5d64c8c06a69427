procedure Main is
   type Cell is record
      A : Integer := 0;
      B : Integer := 0;
   end record;
   type Link is access Cell;
   P : Link;
begin
   declare
      type Link is access Cell;
      Q : Link;
   begin
      P := Q;
   end;
end Main;
