with Ada.Text_IO;
with Run_Input;

procedure Main is
   type Place is record
      Line : Integer := 1;
   end record;
   procedure Ask (P : Place) is
   begin
      Run_Input.Get (P.Line);
   end Ask;
begin
   null;
end Main;
