procedure Main is
begin
   declare
      N : Integer := 1;
      type T is record
         V : Integer := 0;
      end record;
   begin
      null;
   end;
end Main;
