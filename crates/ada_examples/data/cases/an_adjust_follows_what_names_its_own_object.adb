with Ada.Finalization; with Ada.Text_IO; with Ada.Unchecked_Deallocation;
procedure Main is
   type Cell is record Number : Integer := 0; end record;
   type Item is access Cell;
   procedure Free is new Ada.Unchecked_Deallocation (Cell, Item);
   type Node;
   type Link is access Node;
   type Part is new Ada.Finalization.Controlled with record Held : Item; Back : Link; end record;
   overriding procedure Adjust (Object : in out Part);
   type Node is record Own : Part; end record;
   overriding procedure Adjust (Object : in out Part) is
      Taken : Item;
   begin
      Taken := Object.Back.Own.Held;
      Object.Back.Own.Held := null;
      Free (Taken);
      Object.Held := null;
      Object.Back := null;
   exception
      when others =>
         Object.Held := null;
         Object.Back := null;
   end Adjust;
   First : Link := new Node;
   Other : Link := new Node;
begin
   First.Own.Held := new Cell'(Number => 3);
   First.Own.Back := Other;
   First.Own.Back.all := First.all;
   Ada.Text_IO.Put_Line (Integer'Image (First.Own.Held.Number));
end Main;
