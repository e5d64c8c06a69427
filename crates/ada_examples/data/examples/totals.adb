with Ada.Text_IO; with Ada.Unchecked_Deallocation;
procedure Main is
   Price : constant := 250;
   type Item; type Link is access Item;
   type Item is record Count : Integer := 1; Paid : Boolean := False; Next : Link; end record;
   procedure Free is new Ada.Unchecked_Deallocation (Item, Link);
   A : Link := new Item'(Next => null, Paid => True, Count => 3);
   Total : Integer := A.Count * Price;
   Cheap : Boolean := A.Paid and then Total / A.Count < 300;
begin
   Ada.Text_IO.Put_Line ("total and rest");
   Ada.Text_IO.Put_Line (Integer'Image (Total));
   Ada.Text_IO.Put_Line (Integer'Image (Total mod 400 - 50));
   Cheap := not Cheap or else A.Count = 3;
   Free (A);
end Main;
