with Ada.Text_IO;
procedure Main is
   Zero : Integer := 0;
begin
   begin
      declare
         N : Integer := 1 / Zero;
      begin
         Ada.Text_IO.Put_Line (Integer'Image (N));
      exception
         when others =>
            Ada.Text_IO.Put_Line ("inner");
      end;
   exception
      when Constraint_Error =>
         Ada.Text_IO.Put_Line ("outer");
   end;
end Main;
