with Ada.Finalization; with Ada.Text_IO;
procedure Main is
   type Mirror is new Ada.Finalization.Limited_Controlled with record Value : Integer := 2; end record;
   overriding procedure Finalize (Object : in out Mirror);
   overriding procedure Finalize (Object : in out Mirror) is
      Image : Mirror;
   begin
      Ada.Text_IO.Put_Line (Integer'Image (Object.Value));
      Image.Value := 0;
   end Finalize;
   M : Mirror;
begin
   M.Value := 3;
end Main;
