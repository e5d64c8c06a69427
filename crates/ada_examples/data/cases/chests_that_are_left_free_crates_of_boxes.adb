with Ada.Finalization; with Ada.Text_IO; with Ada.Unchecked_Deallocation;
procedure Main is
   type Cell is record Value : Integer := 0; end record;
   type Ref is access Cell;
   procedure Free is new Ada.Unchecked_Deallocation (Cell, Ref);
   type Box is new Ada.Finalization.Limited_Controlled with record Item : Ref; end record;
   overriding procedure Finalize (Object : in out Box);
   type Crate is record Left : Box; Weight : Integer := 0; Right : Box; end record;
   type Crate_Link is access Crate;
   procedure Free_Crate is new Ada.Unchecked_Deallocation (Crate, Crate_Link);
   type Chest is new Ada.Finalization.Limited_Controlled with record Held : Crate_Link; end record;
   overriding procedure Finalize (Object : in out Chest);
   type Chest_Link is access Chest;
   procedure Free_Chest is new Ada.Unchecked_Deallocation (Chest, Chest_Link);
   overriding procedure Finalize (Object : in out Box) is
   begin
      if Object.Item = null then
         Ada.Text_IO.Put_Line ("a box");
      else
         Ada.Text_IO.Put_Line (Integer'Image (Object.Item.Value));
      end if;
      Free (Object.Item);
   exception
      when others => null;
   end Finalize;
   overriding procedure Finalize (Object : in out Chest) is
      Mine : Crate_Link;
   begin
      Mine := Object.Held;
      Object.Held := null;
      Free_Crate (Mine);
      Ada.Text_IO.Put_Line ("a chest");
   end Finalize;
   procedure Fill (Object : in out Chest) is
   begin
      Object.Held := new Crate;
      Object.Held.Left.Item := new Cell'(Value => 3);
      Object.Held.Right.Item := new Cell'(Value => 3);
   end Fill;
begin
   declare
      C : Chest_Link := new Chest;
      D : Chest_Link := new Chest;
   begin
      Fill (C.all);
      Fill (D.all);
      Free_Chest (D);
      Ada.Text_IO.Put_Line ("freed");
      D := new Chest;
      Fill (D.all);
      D.Held.Left.Item.Value := 4;
      D.Held.Right.Item.Value := 4;
      Free (C.Held.Left.Item);
      Free (C.Held.Right.Item);
   end;
   Ada.Text_IO.Put_Line ("left");
end Main;
