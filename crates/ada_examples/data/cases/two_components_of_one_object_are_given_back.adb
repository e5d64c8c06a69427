with Ada.Text_IO;
with Ada.Unchecked_Deallocation;

procedure Main is
   type Place is record
      Line   : Integer := 1;
      Column : Integer := 2;
   end record;
   procedure Swap (I : in out Integer; J : in out Integer) is
   begin
      null;
   end Swap;
   P : Place;
begin
   Swap (P.Line, P.Column);
end Main;
