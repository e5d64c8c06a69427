with Ada.Finalization; with Ada.Text_IO; with Ada.Unchecked_Deallocation;
procedure Main is
   type Box;
   type Box_Link is access Box;
   type Guard;
   type Guard_Link is access Guard;
   type Cell is record Value : Integer := 1; Own : Guard_Link; Other : Guard_Link; end record;
   type Tray is record First : Integer := 0; Part : Cell; end record;
   type Box is record First : Integer := 0; Part : Tray; end record;
   type Guard is new Ada.Finalization.Limited_Controlled with record Value : Integer := 2; Back : Box_Link; end record;
   overriding procedure Finalize (Object : in out Guard);
   procedure Free_Box is new Ada.Unchecked_Deallocation (Box, Box_Link);
   procedure Free is new Ada.Unchecked_Deallocation (Guard, Guard_Link);
   procedure Finalize (Object : in out Guard) is
      X : Box_Link;
   begin
      X := Object.Back;
      Object.Back := null;
      X.Part.Part.Other := X.Part.Part.Own;
      X.Part.Part.Own := null;
   exception
      when others =>
         null;
   end Finalize;
   procedure Drop (N : in out Cell) is
   begin
      Free (N.Own);
   end Drop;
   A : Box_Link := new Box;
   B : access Box := A;
begin
   B.Part.Part.Own := new Guard;
   B.Part.Part.Own.Back := A;
   Drop (B.Part.Part);
   Ada.Text_IO.Put_Line (Integer'Image (B.Part.Part.Other.Value));
end Main;
