procedure Main is
begin
   declare
      N : Integer := 1;
   begin
      null;
   end;
   N := 2;
end Main;
