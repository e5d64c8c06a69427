with Ada.Text_IO;
procedure Main is
begin
   begin
      begin
         raise Program_Error;
      exception
         when Storage_Error =>
            Ada.Text_IO.Put_Line ("inner");
      end;
      Ada.Text_IO.Put_Line ("not reached");
   exception
      when Program_Error =>
         Ada.Text_IO.Put_Line ("outer");
   end;
   Ada.Text_IO.Put_Line ("behind");
end Main;
