with Ada.Finalization; with Ada.Text_IO; with Ada.Unchecked_Deallocation;
procedure Main is
   type Shell is new Ada.Finalization.Controlled with record Size : Integer := 1; end record;
   type Nut is access Shell;
   type Bough is new Ada.Finalization.Controlled with record Fruit : Nut; end record;
   overriding procedure Adjust (Object : in out Bough);
   type Tree is record Lower : Bough; Upper : Bough; end record;
   procedure Free is new Ada.Unchecked_Deallocation (Shell, Nut);
   overriding procedure Adjust (Object : in out Bough) is
      Other : Nut;
   begin
      Object.Fruit := null;
      Free (Other);
   end Adjust;
   Old : Tree;
   Recent : Tree;
begin
   Recent := Old;
   Ada.Text_IO.Put_Line ("copied");
end Main;
