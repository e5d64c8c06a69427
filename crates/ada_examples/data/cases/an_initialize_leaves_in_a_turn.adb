with Ada.Finalization; with Ada.Text_IO; with Ada.Unchecked_Deallocation; with Run_Input;
procedure Main is
   Odd : exception;
   type Cell is record Value : Integer := 0; end record;
   type Link is access Cell;
   type Holder is new Ada.Finalization.Limited_Controlled with record Held : Link; end record;
   overriding procedure Initialize (Object : in out Holder);
   overriding procedure Finalize (Object : in out Holder);
   procedure Free is new Ada.Unchecked_Deallocation (Cell, Link);
   overriding procedure Initialize (Object : in out Holder) is
   begin
      Object.Held := new Cell;
      Run_Input.Get (Object.Held.Value);
      if Object.Held.Value < 0 then
         Free (Object.Held);
         raise Odd;
      end if;
   end Initialize;
   overriding procedure Finalize (Object : in out Holder) is
   begin
      Free (Object.Held);
      Ada.Text_IO.Put_Line ("freed");
   end Finalize;
begin
   for Turn in 1 .. 3 loop
      begin
         declare
            H : Holder;
         begin
            Ada.Text_IO.Put_Line (Integer'Image (H.Held.Value));
         end;
      exception
         when Odd => Ada.Text_IO.Put_Line ("none");
      end;
   end loop;
end Main;
