with Ada.Finalization; with Ada.Text_IO; with Ada.Unchecked_Deallocation;
procedure Main is
   type Cell is record Value : Integer := 0; end record;
   type Ref is access Cell;
   procedure Free is new Ada.Unchecked_Deallocation (Cell, Ref);
   type Box is new Ada.Finalization.Limited_Controlled with record Item : Ref; end record;
   overriding procedure Initialize (Object : in out Box);
   type Crate is record Inner : Box; Number : Integer := 0; end record;
   type Crate_Link is access Crate;
   procedure Free_Crate is new Ada.Unchecked_Deallocation (Crate, Crate_Link);
   type Shelf is record Held : Crate_Link; end record;
   type Shelf_Link is access Shelf;
   overriding procedure Initialize (Object : in out Box) is
   begin
      Object.Item := new Cell'(Value => 6);
   end Initialize;
   S : Shelf_Link := new Shelf;
begin
   S.Held := new Crate;
   Ada.Text_IO.Put_Line (Integer'Image (S.Held.Inner.Item.Value));
   Free_Crate (S.Held);
end Main;
