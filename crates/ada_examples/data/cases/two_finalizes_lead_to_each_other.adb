with Ada.Finalization; with Ada.Text_IO;
procedure Main is
   type Left is new Ada.Finalization.Limited_Controlled with record Value : Integer := 1; end record;
   type Right is new Ada.Finalization.Limited_Controlled with record Value : Integer := 2; end record;
   type Pair is record Place : Integer := 0; One : Left; end record;
   overriding procedure Finalize (Object : in out Left);
   overriding procedure Finalize (Object : in out Right);
   overriding procedure Finalize (Object : in out Right) is
      P : Pair;
   begin
      P.One.Value := Object.Value;
   end Finalize;
   overriding procedure Finalize (Object : in out Left) is
      R : Right;
   begin
      R.Value := Object.Value;
   end Finalize;
   L : Left;
begin
   Ada.Text_IO.Put_Line (Integer'Image (L.Value));
end Main;
