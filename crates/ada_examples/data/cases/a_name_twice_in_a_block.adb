procedure Main is
begin
   declare
      N : Integer := 1;
      N : Integer := 2;
   begin
      null;
   end;
end Main;
