with Ada.Finalization; with Ada.Text_IO; with Ada.Unchecked_Deallocation;
procedure Main is
   type Cell is record Value : Integer := 3; end record;
   type Ref is access Cell;
   procedure Free is new Ada.Unchecked_Deallocation (Cell, Ref);
   type Leaf;
   type Tree;
   type Tree_Link is access Tree;
   type Leaf_Link is access Leaf;
   type Tree is new Ada.Finalization.Limited_Controlled with record Item : Ref; First : Leaf_Link; Second : Leaf_Link; end record;
   overriding procedure Finalize (Object : in out Tree);
   type Leaf is new Ada.Finalization.Limited_Controlled with record Item : Ref; end record;
   overriding procedure Finalize (Object : in out Leaf);
   procedure Tell (Given : in Leaf_Link) is
   begin
      if Given = null then
         Ada.Text_IO.Put_Line ("no leaf");
      else
         Ada.Text_IO.Put_Line ("a leaf that is gone");
      end if;
   end Tell;
   overriding procedure Finalize (Object : in out Leaf) is
   begin
      Ada.Text_IO.Put_Line ("leaf");
      Free (Object.Item);
   end Finalize;
   overriding procedure Finalize (Object : in out Tree) is
      Kept : Leaf_Link;
   begin
      Kept := Object.First;
      Object.First := null;
      Tell (Object.First);
      Tell (Kept);
      Object.Second := Kept;
      Tell (Object.Second);
      Free (Object.Item);
   end Finalize;
   T : Tree_Link := new Tree;
begin
   T.Item := new Cell;
   T.First := new Leaf;
   T.First.Item := new Cell;
end Main;
