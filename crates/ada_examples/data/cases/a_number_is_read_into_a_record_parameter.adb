with Ada.Text_IO;
with Run_Input;

procedure Main is
   type Place is record
      Line : Integer := 1;
   end record;
   procedure Ask (P : in out Place) is
   begin
      Run_Input.Get (P.Line);
   end Ask;
   P : Place;
begin
   Ask (P);
   Ada.Text_IO.Put_Line (Integer'Image (P.Line));
end Main;
