procedure Main is
begin
   declare
      type T;
   begin
      null;
   end;
end Main;
