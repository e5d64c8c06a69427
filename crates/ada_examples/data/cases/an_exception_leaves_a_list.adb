with Ada.Finalization; with Ada.Text_IO; with Ada.Unchecked_Deallocation;
procedure Main is
   Full : exception;
   type Node;
   type Link is access Node;
   type Node is record Value : Integer := 0; Next : Link; end record;
   type List is new Ada.Finalization.Limited_Controlled with record Head : Link; end record;
   overriding procedure Finalize (Object : in out List);
   procedure Free is new Ada.Unchecked_Deallocation (Node, Link);
   overriding procedure Finalize (Object : in out List) is
      Rest : Link;
   begin
      while Object.Head /= null loop
         Ada.Text_IO.Put_Line (Integer'Image (Object.Head.Value));
         Rest := Object.Head.Next;
         Object.Head.Next := null;
         Free (Object.Head);
         Object.Head := Rest;
         Rest := null;
      end loop;
      Ada.Text_IO.Put_Line ("freed");
   exception
      when Constraint_Error => null;
   end Finalize;
   procedure Fill (Count : in Integer) is
      L : List;
   begin
      for I in 1 .. Count loop
         if I > 2 then
            raise Full;
         end if;
         L.Head := new Node'(Value => I, Next => L.Head);
      end loop;
      Ada.Text_IO.Put_Line ("filled");
   end Fill;
begin
   Fill (1);
   Fill (3);
   Ada.Text_IO.Put_Line ("not reached");
exception
   when Full => Ada.Text_IO.Put_Line ("full");
end Main;
