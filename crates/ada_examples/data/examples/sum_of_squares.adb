with Ada.Text_IO; with Ada.Unchecked_Deallocation;
procedure Main is
   type Node; type Link is access Node;
   type Node is record Value : Integer := 0; Next : Link; end record;
   Too_Many : exception;
   procedure Free is new Ada.Unchecked_Deallocation (Node, Link);
   procedure Print_Sum (Count : Integer) is
      procedure Print (Sum : in Integer; Is_Empty : in Boolean) is
      begin
         if Is_Empty then Ada.Text_IO.Put_Line ("nothing"); return; end if;
         Ada.Text_IO.Put_Line (Integer'Image (Sum));
      end Print;
      First : Link;
      Sum : Integer := 0;
   begin
      if Count > 9 then raise Too_Many; end if;
      for I in 1 .. Count loop
         First := new Node'(I * I, First);
      end loop;
      while First /= null loop
         declare
            Rest : Link;
         begin
            Sum := Sum + First.Value;
            Rest := First.Next;
            First.Next := null;
            Free (First);
            First := Rest;
         end;
      end loop;
      Print (Sum, Count = 0);
   end Print_Sum;
begin
   for I in 0 .. 3 loop
      Print_Sum (I);
   end loop;
   Print_Sum (10);
exception
   when Too_Many => Ada.Text_IO.Put_Line ("too many");
end Main;
