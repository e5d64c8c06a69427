with Ada.Finalization; with Ada.Text_IO; with Ada.Unchecked_Deallocation;
procedure Main is
   type Cell is record Value : Integer := 0; end record;
   type Ref is access Cell;
   procedure Free is new Ada.Unchecked_Deallocation (Cell, Ref);
   type Box is new Ada.Finalization.Limited_Controlled with record Item : Ref; end record;
   overriding procedure Finalize (Object : in out Box);
   type Box_Link is access Box;
   procedure Free_Box is new Ada.Unchecked_Deallocation (Box, Box_Link);
   type Shelf is record Held : Box_Link; Number : Integer := 1; end record;
   type Wall is record Upper : Shelf; Lower : Shelf; end record;
   overriding procedure Finalize (Object : in out Box) is
   begin
      if Object.Item /= null then
         Ada.Text_IO.Put_Line (Integer'Image (Object.Item.Value));
      end if;
      Free (Object.Item);
   exception
      when others => null;
   end Finalize;
   procedure Fill (S : in out Shelf; N : Integer) is
   begin
      S.Held := new Box;
      S.Held.Item := new Cell'(Value => N);
   end Fill;
   procedure Empty (W : in out Wall) is
   begin
      Free_Box (W.Lower.Held);
   end Empty;
   W : Wall;
begin
   Fill (W.Upper, 1);
   Fill (W.Lower, 2);
   Free_Box (W.Lower.Held);
   if W.Lower.Held = null then
      Ada.Text_IO.Put_Line (Integer'Image (W.Upper.Held.Item.Value));
   end if;
   Fill (W.Lower, 3);
   Empty (W);
   Free_Box (W.Upper.Held);
   Ada.Text_IO.Put_Line ("left");
end Main;
