with Ada.Text_IO;
with Ada.Unchecked_Deallocation;

procedure Main is
   type Place is record
      Line   : Integer := 1;
      Column : Integer := 2;
   end record;
   procedure Show (P : Place) is
   begin
      null;
   end Show;
begin
   Show (Place'(1, 2));
end Main;
