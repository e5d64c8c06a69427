with Ada.Finalization; with Ada.Text_IO;
procedure Main is
begin
   declare
      type Cell is record Value : Integer := 6; end record;
      type Link is access Cell;
      type Slot is record Place : Integer := 0; Named : Link; end record;
      type Count is new Ada.Finalization.Limited_Controlled with record Value : Integer := 2; end record;
      overriding procedure Initialize (Object : in out Count);
      overriding procedure Initialize (Object : in out Count) is
         Kept : Slot;
      begin
         Kept.Place := 4;
         Object.Value := Kept.Place;
      end Initialize;
      C : Count;
   begin
      Ada.Text_IO.Put_Line (Integer'Image (C.Value));
   end;
end Main;
